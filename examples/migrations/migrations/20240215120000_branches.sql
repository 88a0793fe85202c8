-- +goose Up
CREATE TABLE branches (
    code smallint PRIMARY KEY,
    city text
);
ALTER TABLE accounts ADD COLUMN branch smallint REFERENCES branches (code);
ALTER TABLE accounts ADD COLUMN closed boolean NOT NULL DEFAULT false;

-- +goose Down
ALTER TABLE accounts DROP COLUMN closed;
ALTER TABLE accounts DROP COLUMN branch;
DROP TABLE branches;
