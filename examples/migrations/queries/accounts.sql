-- name: ListAccounts :many
SELECT id, holder, balance, branch, closed FROM accounts;
