object Main {
  def main(): Unit = {
    println(2147483648)
  }
}
