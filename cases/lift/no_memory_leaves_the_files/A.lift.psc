what stood here before
