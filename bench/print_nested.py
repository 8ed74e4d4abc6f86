x = np.arange(3000)[:, None] + np.arange(100)
repeat: print(x.tolist())
