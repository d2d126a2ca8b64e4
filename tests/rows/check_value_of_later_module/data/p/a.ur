val y = Main.x
