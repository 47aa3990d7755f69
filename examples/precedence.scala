object Main {
  def main(): Unit = {
    println(2 + 3 * 4 - 5)
    println(2 * 3 + 4 * 5)
    println(10 - 4 - 3)
    println(10 - 4 + 3)
    println(10 - 2 * 3 - 4)
    println(2 * 3 * 4 - 5 * 6 + 7)
    println(1 + 2 * 3 * 4)
    println(1 - 1 * 0)
    println(0 * 5 + 7)
  }
}
