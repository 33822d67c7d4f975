echo srcip,pkt_len; yes 10.0.0.1,1500 | head -c 268435456
