-- name: ListT :many
SELECT id, name FROM u;
