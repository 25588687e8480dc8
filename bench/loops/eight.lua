-- The loop of eight.ial: its seven phi in a ring are turned through one local, which takes Lua half the time of one assignment of all.
return function(a, n)
  local p, q, r, s, t, u, v, k = a, a, a, n, a, n, a, n
  while k ~= 0 do
    local first = p
    p = q
    q = r
    r = s
    s = t
    t = u
    u = v
    v = first
    k = k - 1
  end
  return p
end
