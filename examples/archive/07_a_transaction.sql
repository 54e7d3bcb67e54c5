-- What a transaction moved.
SELECT seq, record, from_kind, from_user, to_kind, to_user, currency, amount
FROM post
WHERE txn = 'a1'
ORDER BY seq;
