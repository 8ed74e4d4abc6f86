x = 7
y = 3
for i in range(300):
    for j in range(100):
        v = x + y
        w = v * j
        x = w % 1000
