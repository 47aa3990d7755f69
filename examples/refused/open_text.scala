object Main {
  def main(): Unit = {
    println("abc)
  }
}
