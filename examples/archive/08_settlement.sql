-- What the network is to get for each day, less what it gave back.
SELECT date(at / 1000, 'unixepoch') AS day, currency,
    sum(CASE WHEN to_kind = 2 THEN amount ELSE 0 END) AS cleared,
    sum(CASE WHEN from_kind = 2 THEN amount ELSE 0 END) AS given_back,
    sum(CASE WHEN to_kind = 2 THEN amount ELSE -amount END) AS net
FROM post
WHERE from_kind = 2 OR to_kind = 2
GROUP BY day, currency
ORDER BY day, currency;
