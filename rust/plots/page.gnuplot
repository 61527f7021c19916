# What all pages have in common.
set encoding utf8
set border 3 lw 1 lc rgb '#888888'
set grid xtics ytics lt 1 lw 0.5 lc rgb '#dddddd'
set xzeroaxis lt 1 lw 1 lc rgb '#888888'
set key left top Left reverse samplen 2.2 spacing 1.2 font ',13'
