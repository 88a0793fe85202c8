-- +goose Up
CREATE TABLE accounts (
    id bigserial PRIMARY KEY,
    owner text NOT NULL,
    balance bigint NOT NULL DEFAULT 0,
    created_by text
);
CREATE INDEX accounts_owner ON accounts (owner);

-- +goose Down
DROP TABLE accounts;
