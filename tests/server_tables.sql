-- What the databases of tests/servers are filled with before the base backup.
set client_min_messages = warning;
create table account (id int primary key, branch int, owner text, balance numeric) with (fillfactor = 75);
create index account_branch on account (branch, owner);
create table ledger (id int primary key, line text);         -- which the old primary alone changes behind the fork
create table journal (at int, line text);
create table tail (at int, line text);
create table emptied (id int unique, line text);
create table only_new_drops (id int primary key);
create table only_old_drops (id int primary key);
create table letter (id int primary key, body text);
alter table letter alter column body set storage external;
create table locked (id int, line text);        -- never vacuumed: its rows keep their lockers
create unlogged table scratch (id int primary key, line text);
create sequence ticket increment 5;
create table event (id bigserial primary key, kind int default 1);
create table visit (id int, page int, line text) with (autovacuum_enabled = off);
create index visit_page on visit (page);    -- whose tuples are posting lists
create index visit_line on visit (line, page);
insert into account select g, g % 19, repeat(md5(g::text), 1 + g % 4), g from generate_series(1, 2000) g;
insert into ledger select g, repeat('l', g % 90) from generate_series(1, 2000) g;
insert into journal select g, repeat('j', g % 70) from generate_series(1, 3000) g;
insert into tail select g, repeat('t', 120) from generate_series(1, 3000) g;
insert into emptied select g, 'e' || g from generate_series(1, 800) g;
insert into only_new_drops select generate_series(1, 400);
insert into only_old_drops select generate_series(1, 400);
insert into letter select g, repeat(md5(g::text), 150 + g) from generate_series(1, 30) g;
insert into locked select g, 'l' from generate_series(1, 200) g;
insert into scratch select g, 's' from generate_series(1, 200) g;
insert into event select from generate_series(1, 150);
insert into visit select g, g % 7, 'line ' || (g % 3) from generate_series(1, 3000) g;
select count(nextval('ticket')) from generate_series(1, 40);
vacuum (analyze) account, ledger, journal;
select setval('ticket', 500), setval('event_id_seq', 150);
