object Main {
  def main(): Unit = {
  }
}
