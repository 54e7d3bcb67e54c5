-- Whether each posting is there once: the numbers run from 1 to the head's count.
SELECT head.posts, count(post.seq) AS found, min(post.seq) AS first, max(post.seq) AS last
FROM head LEFT JOIN post
GROUP BY head.id;
