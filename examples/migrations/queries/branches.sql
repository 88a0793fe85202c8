-- name: ListCities :many
SELECT code, city FROM branches;
