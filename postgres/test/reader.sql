\set back random(0, 80000)
SELECT payload FROM events WHERE id = :customers - :back;
