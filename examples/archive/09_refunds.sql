-- Which transactions were refunded, and how much of them.
SELECT txn, currency,
    sum(CASE WHEN to_kind = 2 THEN amount ELSE 0 END) AS cleared,
    sum(CASE WHEN from_kind = 2 THEN amount ELSE 0 END) AS refunded
FROM post
WHERE txn IS NOT NULL
GROUP BY txn, currency
HAVING refunded > 0
ORDER BY txn;
