# A trace of `packets` packets, nearly each with a new key: numbers of two generators modulo 2^31-1.
BEGIN {
    print "srcip,dstip,srcport,dstport,proto,pkt_len,tin,tout,qsize"
    one = 1
    other = 5
    for (i = 0; i < packets; i++) {
        one = (one * 16807) % 2147483647
        other = (other * 48271) % 2147483647
        printf "%d,%d,%d,80,6,%d,%d,%d,%d\n", one, other, other % 65536, 40 + one % 1460, i * 100, i * 100 + one % 5000, other % 30
    }
}
