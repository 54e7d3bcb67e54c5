-- The history of a user in a currency, with the balance after each posting.
SELECT seq, record, datetime(at / 1000, 'unixepoch') AS moment, moved, sum(moved) OVER (ORDER BY seq) AS balance, txn
FROM (
    SELECT seq, record, at, CASE WHEN to_user = 'u1' THEN amount ELSE -amount END AS moved, txn
    FROM post
    WHERE currency = 840 AND (from_user = 'u1' OR to_user = 'u1')
)
ORDER BY seq;
