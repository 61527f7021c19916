# What all pages have in common. The program years puts it into every page's script.
set encoding utf8
set border 3 lw 1 lc rgb '#888888'
set xtics nomirror textcolor '#000000'
set grid xtics ytics lt 1 lw 0.5 lc rgb '#dddddd'
set key left top Left reverse samplen 1.6 spacing 1.2 font ',13'
