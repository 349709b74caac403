module keywrap.example/keywrap

go 1.19
