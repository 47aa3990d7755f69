   object Main {
def main(): Unit = {
        println(1)
println(2 + 2)
 println(3 * 3)
                                        println(4 * 4 - 0)
            }
       }
