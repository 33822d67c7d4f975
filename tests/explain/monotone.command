enclose
