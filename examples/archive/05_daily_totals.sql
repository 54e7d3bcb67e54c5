-- What each account received and paid on each day, in UTC.
SELECT date(at / 1000, 'unixepoch') AS day,
    CASE kind WHEN 1 THEN 'gateway' WHEN 2 THEN 'network' WHEN 3 THEN 'programme' ELSE 'user' END AS account,
    user, currency, sum(received) AS received, sum(paid) AS paid
FROM (
    SELECT at, from_kind AS kind, from_user AS user, currency, 0 AS received, amount AS paid FROM post
    UNION ALL
    SELECT at, to_kind, to_user, currency, amount, 0 FROM post
)
GROUP BY day, kind, user, currency
ORDER BY day, kind, user, currency;
