-- Numbers: what is printed, mathematics, integers of 64 bits, an FFT, and a table of primes.
print(1 / 3, -0.1, 1e100, 2 ^ 53, 10 // 3, -10 // 3, 7.5 % 2, 1 / 0, -1 / 0, 100 // 1e-3)
for _, f in ipairs { "sin", "cos", "tan", "exp", "log", "sqrt", "atan" } do
  local line = {}
  for x = 0.25, 4, 0.75 do line[#line + 1] = string.format("%.13g", math[f](x)) end
  print(f, table.concat(line, " "))
end
print(math.maxinteger, math.mininteger, math.maxinteger * 3, math.tointeger(2 ^ 40), 7 << 60, -1 >> 1, ~5 & 0xff)
print(string.format("%d %5.2f %e %g %a %x %q", 42, 3.14159, 12345.678, 1e-5, 1.0, 255, 0.1))
print(tonumber("0x1p4"), tonumber("1e1"), tonumber("  12  "), tonumber("12a"), tonumber("z", 36), math.type(1), math.type(1.0))

local function fft(re, im)
  local n = #re
  if n == 1 then return re, im end
  local part = { {}, {}, {}, {} }
  for i = 1, n, 2 do
    local k = (i + 1) // 2
    part[1][k], part[2][k], part[3][k], part[4][k] = re[i], im[i], re[i + 1], im[i + 1]
  end
  local er, ei = fft(part[1], part[2])
  local odd_re, odd_im = fft(part[3], part[4])
  local out_re, out_im = {}, {}
  for k = 1, n // 2 do
    local angle = -2 * math.pi * (k - 1) / n
    local c, s = math.cos(angle), math.sin(angle)
    local tr, ti = c * odd_re[k] - s * odd_im[k], c * odd_im[k] + s * odd_re[k]
    out_re[k], out_im[k], out_re[k + n // 2], out_im[k + n // 2] = er[k] + tr, ei[k] + ti, er[k] - tr, ei[k] - ti
  end
  return out_re, out_im
end

local re, im = {}, {}
for i = 1, 64 do re[i], im[i] = (i * 37 % 11) / 7, (i * 5 % 13) / 3 end
local out_re, out_im = fft(re, im)
for i = 1, 64, 9 do print(string.format("%.12f %.12f", out_re[i], out_im[i])) end

local prime, count = {}, 0
for i = 2, 2000 do prime[i] = true end
for i = 2, 2000 do
  if prime[i] then
    count = count + 1
    for k = i * i, 2000, i do prime[k] = false end
  end
end
print(count, collectgarbage("count") > 0)
