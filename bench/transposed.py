a = np.full((4096, 1024), 7)
b = np.full((1024, 4096), 3)
repeat: z = a.T + b
