# drawn() steps the generator X := X * 6364136223846793005 + 1442695040888963407 modulo 2^64, and gives X divided by
# 2^33. The seed is that of -v seed=N, a number below 2^16, or 1. X stands in four limbs of 16 bits, x0 the least, so that awk's doubles
# hold every product.
BEGIN { x0 = seed == "" ? 1 : seed }

function drawn(   s0, s1, s2, s3) {
  s0 = x0 * 32557 + 33103
  s1 = x1 * 32557 + x0 * 19605 + 63335 + int(s0 / 65536)
  s2 = x2 * 32557 + x1 * 19605 + x0 * 62509 + 31614 + int(s1 / 65536)
  s3 = x3 * 32557 + x2 * 19605 + x1 * 62509 + x0 * 22609 + 5125 + int(s2 / 65536)
  x0 = s0 % 65536
  x1 = s1 % 65536
  x2 = s2 % 65536
  x3 = s3 % 65536
  return x3 * 32768 + int(x2 / 2)
}
