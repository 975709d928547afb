INSERT INTO city VALUES ('Bern'); SELECT 'Bern is stored';
INSERT INTO city VALUES ('Oslo'); SELECT 'Oslo is stored';
INSERT INTO city VALUES ('Quito'); SELECT 'Quito is stored';
INSERT INTO city VALUES ('Rome'); SELECT 'Rome is stored';
