# How often a made signal is found, over its C/N0: points measured, lines theory.
# `points` and `theory` are files of the folder that it runs in, and `names` says what each column
# is, as of benchmarks/signals.
load 'style.gp'
set xlabel 'C/N0, dB-Hz'
set ylabel 'share found'
set xrange [31:47]
set yrange [-0.03:1.03]
set key inside left top vertical Left reverse title 'points: measured; lines: theory'
colours = "#777777 #2e8b57 #1f5fa8 #7b3fa0 #d9730d"
plot for [k = 1:5] 'theory' using 1:(column(k + 1)) with lines linewidth 1.5 \
         linecolor rgb word(colours, k) notitle, \
     for [k = 1:5] 'points' using 1:(column(k + 1)) with points pointtype 7 pointsize 0.7 \
         linecolor rgb word(colours, k) title word(names, k)
