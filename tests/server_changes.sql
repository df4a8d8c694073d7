-- Changes of every kind that replay takes. :side is 1 before the fork, then 2 on the old primary and 3 on the new one.
set client_min_messages = warning;
select :side = 2 as is_old, :side = 3 as is_new \gset

-- rows: added, changed in place of one another and elsewhere, removed, locked, in subtransactions, in vain
insert into account select :side * 100000 + g, g % 19, md5(g::text), g from generate_series(1, 400) g;
update account set balance = balance + :side where id % 9 = :side;
update account set owner = owner || 'x', branch = branch + 1 where id % 29 = :side;
delete from account where id > :side * 100000 + 50 and id % 4 = 0;
select count(*) from account;
begin; select count(*) from (select from account where id % 50 = :side for update) q; commit;
begin; select count(*) from (select from account where id % 50 = :side + 3 for share) q; rollback;
begin; insert into journal values (:side, 'first'); savepoint a; insert into journal values (:side, 'in vain');
rollback to a; insert into journal values (:side, 'second'); commit;
begin; insert into journal select g, 'in vain' from generate_series(1, 150) g; rollback;
begin; select count(*) from (select from locked where id <= 20 for key share) q; savepoint a;
update locked set line = line || :side where id <= 15; commit;
do $$ begin for i in 1..70 loop
  begin insert into journal values (i, 'subtransaction'); exception when unique_violation then null; end;
end loop; end $$;
insert into emptied values (1, 'there already') on conflict do nothing;
insert into emptied values (:side * 1000, 'new') on conflict (id) do update set line = excluded.line;
insert into emptied values (:side * 1000, 'newer') on conflict (id) do update set line = excluded.line;
insert into letter select :side * 1000 + g, repeat(md5(g::text), 200) from generate_series(1, 6) g;
update journal set line = line || 'longer' where at % 5 = 0;
\copy journal from program 'seq 1 300 | sed "s/$/\tcopied/"'
vacuum account; vacuum journal;
select count(*) from journal;

-- posting lists of B-trees: made, split and shortened
insert into visit select :side * 10000 + g, g % 7, 'line ' || (g % 3) from generate_series(1, 900) g;
delete from visit where id % 5 = :side;
vacuum visit;
insert into visit select :side * 20000 + g, 3, 'line 1' from generate_series(1, 400) g;

-- what has no rows
select pg_logical_emit_message(false, 'tests', 'a message');
select pg_create_restore_point('side ' || :side);
select pg_switch_wal();
select count(nextval('ticket')) from generate_series(1, 40);
insert into event select from generate_series(1, 70);
insert into scratch select :side * 1000 + g, 's' from generate_series(1, 40) g;

-- what one side alone does
\if :is_old
  update ledger set line = 'old' where id % 40 = 0;
  delete from ledger where id between 500 and 600;
  insert into ledger select g, 'old' from generate_series(3000, 3500) g;
  delete from tail where at > 700; vacuum tail;
  truncate emptied;
  drop table only_old_drops;
  insert into journal select g, 'old' from generate_series(1, 2500) g;
  alter table letter add column stamp int default 5;
  begin; create table never (id int); insert into never values (1); rollback;
  vacuum full pg_class;
\endif
\if :is_new
  delete from tail where at > 1600; vacuum tail;
  insert into tail select g, 'new' from generate_series(1, 4000) g;
  begin; truncate emptied; rollback;
  drop table only_new_drops;
  vacuum full journal;
  reindex table account;
  insert into emptied select g + 50000, 'new' from generate_series(1, 1200) g;
  truncate scratch; insert into scratch values (3, 'new');
  create materialized view branches as select branch, count(*) from account group by branch; refresh materialized view branches;
\endif
create table made_:side (id serial primary key, line text);
create index journal_at on journal (at);
insert into journal select g, 'behind the index' from generate_series(1, 500) g;
drop index journal_at;
insert into made_:side select g, md5(g::text) from generate_series(1, 900) g;
checkpoint;
delete from made_:side where id % 5 = 0;
update account set owner = 'side ' || :side where id % (11 + :side) = 0;
update account set balance = balance - 1 where id % 13 = 1;
analyze;

-- a sequence's last value is in the log only where it was set
select setval('ticket', 1000 * :side), setval('event_id_seq', (select max(id) from event));
