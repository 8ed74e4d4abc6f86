a = np.full((4096, 1024), 7)
repeat: a[1:] = a[:-1]
