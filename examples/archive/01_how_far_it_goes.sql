-- How far the archive goes.
SELECT instance, records, posts FROM head;
