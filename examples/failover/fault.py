"""Why a report cannot be made."""


class Fault(Exception):
    """Why a report was refused, in one line for the operator. Nothing was written."""
