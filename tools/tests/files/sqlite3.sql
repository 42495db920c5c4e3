create table stock (id integer, city text, note text, price real, left integer);
insert into stock values (1, 'Oslo, west', null, 12.5, -3), (2, 'the "old" town', 'two' || char(10) || 'lines', 0.25, 9223372036854775807),
  (3, '', 'row 1,2', 100.0, 0), (4, 'Bergen', 'a' || char(13) || char(10) || 'b', 3.0, 7), (5, 'Ålesund', '''quoted''', 1e15, 12), (6, ' Molde ', '.', 0.1, 5);
.headers on
.mode csv
select * from stock;
