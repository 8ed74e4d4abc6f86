x = np.full(4, 7)
y = np.full(4, 3)
z = x
for i in range(300):
    for j in range(100):
        v = x + y
        w = v * z
        z = w - y
