-- What each account has, in minor units, as `issuer balances` tells it.
SELECT CASE kind WHEN 1 THEN 'gateway' WHEN 2 THEN 'network' WHEN 3 THEN 'programme' ELSE 'user' END AS account,
    user, currency, sum(moved) AS balance
FROM (
    SELECT from_kind AS kind, from_user AS user, currency, -amount AS moved FROM post
    UNION ALL
    SELECT to_kind, to_user, currency, amount FROM post
)
GROUP BY kind, user, currency
ORDER BY kind, user, currency;
