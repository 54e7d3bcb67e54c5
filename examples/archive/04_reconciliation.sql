-- Reconciliation by currency: how much moved, and that the two sides of all postings come to 0.
SELECT currency, count(*) AS sides, sum(moved) AS net, sum(max(moved, 0)) AS turnover
FROM (
    SELECT currency, -amount AS moved FROM post
    UNION ALL
    SELECT currency, amount FROM post
)
GROUP BY currency
ORDER BY currency;
