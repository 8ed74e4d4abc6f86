x = np.arange(300000)
repeat: print(x.tolist())
