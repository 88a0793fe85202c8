-- +goose Up
ALTER TABLE accounts RENAME COLUMN owner TO holder;
ALTER TABLE accounts DROP COLUMN created_by;
COMMENT ON TABLE accounts IS 'One row for each account, closed ones too.';

-- +goose Down
ALTER TABLE accounts ADD COLUMN created_by text;
ALTER TABLE accounts RENAME COLUMN holder TO owner;
