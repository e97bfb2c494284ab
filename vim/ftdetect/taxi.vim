" Which files of taxi have which syntax.
autocmd BufRead,BufNewFile *.tariff setfiletype taxi_tariff
autocmd BufRead,BufNewFile *.drive setfiletype taxi_drive
