# What the pictures have in common. They are written to standard output, in the folder that gnuplot
# runs in.
set terminal svg size 760,420 rounded font 'DejaVu Sans,13' background 'white' noenhanced
set grid linecolor '#dddddd'
set border linecolor '#555555'
set key outside top center horizontal
grey = '#777777'
