a = np.full((4096, 1), 7, TYPE)
repeat: z = np.broadcast_to(a, (4096, 1024)).copy()
