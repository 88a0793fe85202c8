-- +goose Up
CREATE TABLE s (id bigserial PRIMARY KEY, done boolean);

-- +goose Down
DROP TABLE s;
