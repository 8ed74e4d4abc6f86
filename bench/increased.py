x = np.zeros(SIZE, np.int64)
repeat: x += 1
