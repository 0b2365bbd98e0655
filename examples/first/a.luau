math.abs("hi")
