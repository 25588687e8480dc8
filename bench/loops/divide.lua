-- The loop of divide.ial. For n up to 2^31 no product reaches 2^63, so the signed % is the unsigned remainder; s * d is a multiple of d,
-- so // rounds nothing.
return function(n)
  local i, x, s, d = 0, 0x123456789abcdef, 1000003, -7
  repeat
    i = i + 1
    x = x * i % n + i
    s = s * d // d
  until i >= n
  return x
end
