a = np.zeros(SIZE, np.int64)
for i in range(SIZE):
    a[i] = i
