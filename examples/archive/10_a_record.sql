-- What one record of the device posted.
SELECT seq, from_kind, from_user, to_kind, to_user, currency, amount, txn
FROM post
WHERE record = 9
ORDER BY seq;
