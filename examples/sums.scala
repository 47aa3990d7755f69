object Main {
  def main(): Unit = {
    println(0)
    println(42)
    println(1 + 2 + 3 + 4)
    println(100 - 58)
    println(3 - 10)
    println(6 * 7)
    println(365 * 24 * 60 * 60)
    println(20 * 20 - 2 * 20 * 13 + 13 * 13)
    println(1 - 2 + 3 - 4 + 5 - 6 + 7 - 8)
  }
}
