# Processor seconds for a second of samples, over the slots and over the samples a second.
# `slots` and `rates` are files of the folder that it runs in, as of benchmarks/growth.
load 'style.gp'
set terminal svg size 900,420 rounded font 'DejaVu Sans,13' background 'white' noenhanced
set logscale xy
set yrange [0.0005:20]
set format y '%g'
set ylabel 'processor, s, for 1 s of samples'
set key inside right bottom vertical Left reverse
colours = "#1f5fa8 #2e8b57 #d9730d #7b3fa0"
names = "'hold, real1' 'hold, iq2' 'search, real1' 'search, iq2'"
set label 1 'real time' at graph 0.02, first 1 left offset 0,0.6 textcolor rgb grey
set multiplot layout 1,2
set title 'at 2.046 MHz'
set xlabel 'slots'
set xrange [0.9:72]
set xtics (1, 2, 4, 8, 16, 32, 64)
plot 1 with lines linecolor rgb grey dashtype 2 notitle, \
     for [k = 1:4] 'slots' using 1:(column(k + 1)) with linespoints linewidth 1.5 pointtype 7 \
         pointsize 0.5 dashtype 2 - k % 2 linecolor rgb word(colours, k) \
         title word(names, k)
set title '8 slots'
set xlabel 'million samples a second'
set xrange [1.8:23]
set xtics (2.046, 4.092, 8.184, 16.368)
plot 1 with lines linecolor rgb grey dashtype 2 notitle, \
     for [k = 1:4] 'rates' using 1:(column(k + 1)) with linespoints linewidth 1.5 pointtype 7 \
         pointsize 0.5 dashtype 2 - k % 2 linecolor rgb word(colours, k) \
         title word(names, k)
unset multiplot
