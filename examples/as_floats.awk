# Shows each amplitude of an output as two floating-point numbers, its real and its imaginary part, after its bitstring:
#     ./qsimh_amplitudes -c examples/ghz.circuit -i examples/ghz.bits | awk -f examples/as_floats.awk
$1 != "gen" { r = sqrt(0.5); s = 2 ^ ($6 / 2); printf "%s %.12g %.12g\n", $1, ($2 + ($3 - $5) * r) / s, ($4 + ($3 + $5) * r) / s }
