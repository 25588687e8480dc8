-- The loop of turns.ial: its phi are one assignment of all.
return function(a, b, n)
  local x, y, k = a, b, n
  while k ~= 0 do
    x, y, k = y, x, k - 1
  end
  return x
end
