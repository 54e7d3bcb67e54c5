-- The statements of all users from 2026-03-03 to 2026-03-04, both included.
WITH days AS (SELECT strftime('%s', '2026-03-03') * 1000 AS first, strftime('%s', '2026-03-04', '+1 day') * 1000 AS next),
moved AS (
    SELECT from_user AS user, currency, seq, at, -amount AS amount, txn FROM post WHERE from_user IS NOT NULL
    UNION ALL
    SELECT to_user, currency, seq, at, amount, txn FROM post WHERE to_user IS NOT NULL
),
lines AS (
    SELECT user, currency, 1 AS part, NULL AS seq, 'opening' AS line, NULL AS amount, sum(iif(at < first, amount, 0)) AS balance, NULL AS txn
    FROM moved, days
    GROUP BY user, currency
    UNION ALL
    SELECT user, currency, 2, seq, datetime(at / 1000, 'unixepoch'), amount, balance, txn
    FROM (SELECT *, sum(amount) OVER (PARTITION BY user, currency ORDER BY seq) AS balance FROM moved), days
    WHERE at >= first AND at < next
    UNION ALL
    SELECT user, currency, 3, NULL, 'closing', NULL, sum(iif(at < next, amount, 0)), NULL
    FROM moved, days
    GROUP BY user, currency
)
SELECT user, currency, line, amount, balance, txn
FROM lines
ORDER BY user, currency, part, seq;
